"""Quotations: the prose of the repository's files, the texts in quotation marks there, and the documents in which they must stand."""
