"""Reads a file with a library and prints what it found, for the tests to compare.
usage: read_back.py READER FILE        the status is 3 where the library is not there
"""
import sys


def numbers(values):
    return " ".join(repr(v) for v in values)


def png_by_pil(name):
    from PIL import Image

    with Image.open(name) as image:
        print(image.format, *image.size)
        print(numbers(image.convert("RGB").tobytes()))


def read_by(reader, name):
    """A VTK reader's output, with its complaints as a failure."""
    faults = []
    reader.AddObserver("ErrorEvent", lambda *_: faults.append(1))
    reader.SetFileName(name)
    reader.Update()
    assert not faults, "the reader complains"
    return reader.GetOutput()


def arrays(data):
    for i in range(data.GetNumberOfArrays()):
        array = data.GetArray(i)
        print(array.GetName() or "-", array.GetDataTypeAsString().replace(" ", "_"), end=" ")
        print(numbers(int(array.GetTuple1(j)) for j in range(array.GetNumberOfTuples())))


# by module: `import vtk` may bring readers for MPI, which only run under it


def ply_by_vtk(name):
    from vtkmodules.vtkIOPLY import vtkPLYReader

    mesh = read_by(vtkPLYReader(), name)
    for i in range(mesh.GetNumberOfPoints()):
        print(numbers(mesh.GetPoint(i)))


def vtk_by_vtk(name):
    from vtkmodules.vtkIOLegacy import vtkStructuredPointsReader

    reader = vtkStructuredPointsReader()
    reader.ReadAllScalarsOn()
    image = read_by(reader, name)
    print(*image.GetDimensions())
    arrays(image.GetPointData())


def ply_by_meshio(name):
    import meshio

    mesh = meshio.read(name)
    assert len(mesh.point_data["scalar_measured"]) == len(mesh.points)
    for point in mesh.points.tolist():
        print(numbers(point))


def rows(entries):
    """A line for each entry: its names and values, what is empty left out."""
    for entry in entries:
        print(*(f"{name}={value}" for name, value in entry.items() if value not in ("", None)))


def csv_rows(name):
    import csv

    with open(name, newline="") as file:
        rows(csv.DictReader(file))


def json_rows(name):
    import json

    with open(name) as file:
        rows(json.load(file))


def json_lines(name):
    import json

    with open(name) as file:
        rows(json.loads(line) for line in file)


READERS = {f.__name__: f for f in (png_by_pil, ply_by_vtk, vtk_by_vtk, ply_by_meshio, csv_rows, json_rows, json_lines)}

if __name__ == "__main__":
    try:
        READERS[sys.argv[1]](sys.argv[2])
    except ImportError as missing:
        print(missing, file=sys.stderr)
        sys.exit(3)
