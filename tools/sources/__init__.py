"""What the sources of the crates say, for the tools and the pages that are made of them."""
