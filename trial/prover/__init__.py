"""The definitions beside the oracle's answers: units as theorems that the prover computes."""
