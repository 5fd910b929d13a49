"""The tools of this repository: `./check` alone lists them."""
