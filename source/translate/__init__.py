"""Translates a relocatable object of WebAssembly to C. ../HOW.md explains."""
