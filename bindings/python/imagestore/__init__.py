"""The image store: images on n nodes, any k of which give them back, and a change of one symbol writes n-k+1 nodes.

`balanced` has the proved calls; this package moves bytes between files, nodes and these calls, and computes no symbol.
docs/STORE.md says what is kept when, and docs/SHARE-FILE.md has the share file byte by byte.
"""
