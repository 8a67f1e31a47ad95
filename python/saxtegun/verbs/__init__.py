"""The verbs of `./saxtegun`, a module each: its text is what --help shows, `USAGE` how it is called, `add_words` and `main` do it."""
