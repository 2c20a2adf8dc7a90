"""Random configurations, and the verdict of each program that reads them."""
