"""The rules of docs/RULES.md, and the documents and questions that are made to ask them."""
