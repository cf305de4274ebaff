# Recorded inputs of a program and the outputs that they ask for, each pair a file NAME.in and NAME.out.
import os

class Folder:
    def __init__(self, path):
        self.path = path

    def put(self, name, given, answers):
        """The output begins with its first line."""
        for kind, text in (('.in', given), ('.out', b'DOTS,1\n' + answers)):
            with open(os.path.join(self.path, name + kind), 'wb') as f: f.write(text)
