"""Folders of this machine lent to a guest: the script that it is begun by, its engines, and what becomes of its tree."""
