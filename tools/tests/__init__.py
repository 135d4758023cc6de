"""Unit tests of the package: `suite/outside units` runs them."""
