"""What an author of games and whoever changes an engine do with recordings: the verbs of `./saxtegun`, and what they stand on."""
