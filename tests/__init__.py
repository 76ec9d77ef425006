"""The tests, by subject. `python3 -m tests` runs them and counts them; `python3 -m unittest -k WORD` and `pytest -k
WORD` run the cases whose name has a word, from the top of the repository."""
