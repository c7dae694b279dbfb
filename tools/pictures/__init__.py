"""The parts of tools/view: what a script tells beside its transcript, and how it is drawn. tools/planex.py reads the transcript."""
