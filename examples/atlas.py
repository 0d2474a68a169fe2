"""The table of an atlas read by pandas:  ./run atlas 32 > atlas.csv && python3 examples/atlas.py"""
import pandas
classes = pandas.read_csv("atlas.csv", dtype={"address": str})
print(classes.sort_values("above", ascending=False).head(10).to_string(index=False))
