"""What an operator does with a session: rounds, a market without a bidder, a public page."""
