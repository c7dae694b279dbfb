"""Words for what the program refuses: the tables of the language, scripts as far as a refusal needs them, sentences and hints."""
