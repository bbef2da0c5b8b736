"""The benchmark: what is measured, and the table and the picture of it. ./bench is the command over it."""
