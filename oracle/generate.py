#!/usr/bin/env python3
"""Makes the questions of the recorded answers, the same at every run.

usage: generate.py numbers|sorting|store|build|search|recognise    prints the questions of that file
       generate.py probe FOLDER                                    writes inputs of the program probe, FOLDER/NAME.in
"""
import importlib
import pathlib
import sys

sys.dont_write_bytecode = True
sys.path.insert(0, str(pathlib.Path(__file__).parent / 'questions'))

questions = importlib.import_module(sys.argv[1])
if sys.argv[1] == 'probe':
    for name, content in questions.inputs():
        pathlib.Path(sys.argv[2], f'{name}.in').write_bytes(content)
else:
    for question in questions.questions():
        print(question)
