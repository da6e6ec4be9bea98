"""Small modules that try the translation: ../opcodes runs them."""
