"""The commands of `fixprove` by a plain reading of their pages; README.md has the modules."""
