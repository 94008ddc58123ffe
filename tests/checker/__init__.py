"""The first tier of docs/DEFINITIONS.md once more: what a derivation is, and which lists of items are legal; with derivations by chance to try it on."""
