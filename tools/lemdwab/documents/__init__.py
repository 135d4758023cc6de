"""What is looked for in the documents, and what is made of the tree: docs/make has its tables."""
