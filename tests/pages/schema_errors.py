"""The first error that a schema of docs/ finds in each of the texts given, by the validator of Debian's python3-jsonschema.

Standard input is a list of [name of a schema, text]; a list of null, or of the place and the message of the first error, comes out.
"""
import json
import pathlib
import sys
import warnings

warnings.simplefilter("ignore")
import jsonschema  # noqa: E402

sys.setrecursionlimit(20_000)
DOCS = pathlib.Path(sys.argv[1]).resolve()
NAMES = ("dossier", "command", "limits")
FILES = {(DOCS / f"{name}.schema.json").as_uri(): json.loads((DOCS / f"{name}.schema.json").read_text()) for name in NAMES}


def validator(name):
    """The validator of a schema, which may refer to the others."""
    place = (DOCS / f"{name}.schema.json").as_uri()
    jsonschema.Draft7Validator.check_schema(FILES[place])
    return jsonschema.Draft7Validator(FILES[place], resolver=jsonschema.RefResolver(place, FILES[place], store=FILES))


def first_error(schema, text):
    error = next(schema.iter_errors(json.loads(text)), None)
    return None if error is None else [list(error.absolute_path), error.message]


SCHEMAS = {name: validator(name) for name in NAMES}
json.dump([first_error(SCHEMAS[name], text) for name, text in json.load(sys.stdin)], sys.stdout)
