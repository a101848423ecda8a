"""The text of house modules: reading it into bytes, writing bytes as text, and explaining answers."""
