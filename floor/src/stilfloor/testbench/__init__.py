"""A program as a Verilog testbench, run by an independent simulator: a second witness of what the program prints of a die."""
