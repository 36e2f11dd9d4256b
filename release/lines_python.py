"""Prints the line of each file that is named, by the package that is installed."""

import sys

import imagesize_proved

for path in sys.argv[1:]:
    try:
        found, (width, height) = imagesize_proved.probe(path)
        print(f"{found} {width}x{height}")
    except imagesize_proved.ImageError as error:
        print(f"{error.image_type}: {error.text}" if error.image_type else error.text)
