"""The front of `rvcc-cc`: ordinary C in, a text of the subset of `rvcc` out. Nothing of it is proved; the text that it
writes is what is compiled and proved right. `command.py` says in which order the parts below work."""
