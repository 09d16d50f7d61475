"""README.md, docs/ and the pages of folders: their commands give what stands there, and their words are plain."""
