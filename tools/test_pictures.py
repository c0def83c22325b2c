"""Tests what lab_cases.py says of pictures, by those of the pages. This needs no program."""
import glob
import os
import re
import unittest

from lab_cases import faults_of_picture, lines_drawn

TOP = os.path.dirname(os.path.dirname(os.path.abspath(__file__)))


class Pictures(unittest.TestCase):
    def setUp(self):
        self.pictures = {}
        for name in glob.glob(f"{TOP}/docs/start/*.svg"):
            with open(name, encoding="utf-8") as file:
                self.pictures[os.path.basename(name)] = file.read()

    def test_the_pictures_of_the_pages(self):
        for name, picture in self.pictures.items():
            with self.subTest(name):
                self.assertEqual(list(faults_of_picture(picture, "no")), [])

    def test_the_lines(self):
        self.assertEqual(lines_drawn(self.pictures["ack-forgotten.svg"]), list(range(18, 29)))

    def test_faults(self):
        picture = self.pictures["window-of-three.svg"]
        lower = re.sub(r'y="\d+">SYN 0 win', lambda match: f'y="{int(match[0][3:6]) + 7}">SYN 0 win', picture)
        self.assertEqual(list(faults_of_picture(lower, "no")), ["an arrow crosses 'SYN 0 win 65535'"])
        wide = picture.replace('x1="200"', 'x1="2000"', 1)
        self.assertIn("a point out of the frame", next(faults_of_picture(wide, "no")))
        self.assertEqual(list(faults_of_picture(picture, "yes")), ["1 red marks, and the answer is yes"])
        key = self.pictures["ack-forgotten.svg"]
        self.assertIn("something is not reached, and the answer is yes", faults_of_picture(key, "yes"))


if __name__ == "__main__":
    unittest.main()
