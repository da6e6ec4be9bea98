"""Trials of the page in a browser, by web/test."""
