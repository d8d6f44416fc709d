"""What the tools share: sheets, plans, what an arc pays, budgets, the drawing, and the factors of the library."""
