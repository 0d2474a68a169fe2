# The table of an atlas read by R:  ./run atlas 32 > atlas.csv && Rscript examples/atlas.R
classes <- read.csv("atlas.csv", colClasses = c(address = "character"))
print(head(classes[order(-classes$above), ], 10))
