# Writes stdin: the worked label of document 01. stdout is the text that the document prints for it. Run in this folder: python3 make.py
import sys

sys.path.append("../../tools")
from jobs import job

with open("stdin", "wb") as out:
    out.write(job())
