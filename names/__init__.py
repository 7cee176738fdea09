"""A kitchen by names: what ./kitchen is made of."""
