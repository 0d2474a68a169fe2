"""The greatest eigenvalue of an angle's transition matrix by scipy, in floating point and so without any promise.

    ./run show 1/4 | python3 examples/spectrum.py
"""
import sys
from scipy.sparse import lil_matrix
from scipy.sparse.linalg import eigs

rows = [line.split() for line in sys.stdin if line.startswith("row ")]
matrix = lil_matrix((len(rows), len(rows)))
for row in rows:
    for image in row[6:]:
        matrix[int(row[1]), int(image)] += 1
values = eigs(matrix.tocsr(), k=1)[0] if len(rows) > 3 else __import__("numpy").linalg.eigvals(matrix.toarray())
print(max(abs(values)))
