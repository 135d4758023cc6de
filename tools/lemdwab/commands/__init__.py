"""The commands, each a module with a function `main`. suite, examples, bench and docs/make have a
front of each, which starts it."""
