"""The calls of other libraries over the proved steps: a site moves over by changing its imports. docs/COMING.md has the differences."""
