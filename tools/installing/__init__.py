"""Installs desk below a PREFIX, tries what is installed there, and removes it: what ./install runs."""
