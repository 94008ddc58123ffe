"""Finding proofs at the user's side (`holls prove`); `holls.search` finds theorems. The program runs the steps, and nothing here is trusted."""
