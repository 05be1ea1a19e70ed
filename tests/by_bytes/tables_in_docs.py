"""The tables that scripts/doc_tables.py writes match docs/openapi.yaml and the SQL, and the document has all statuses of the gateway."""
import re
import runpy

from program import TOP


def tables_are_current():
    """Each document has its tables as the script makes them now, and the client its module."""
    made = runpy.run_path(str(TOP / "scripts" / "doc_tables.py"))
    try:
        old = [it for it in (*made["TABLES"], *made["WHOLE"]) if made["rewritten"](it) != (TOP / it).read_text()]
    except LookupError as error:
        return [repr(error)]
    return [f"{it}: a table is not current: run scripts/doc_tables.py" for it in old] + of_gateway(made["document"]())


def of_gateway(document):
    """The document has each status that the gateway itself responds with, and no other, except 499, which no client gets."""
    code = "".join(it.read_text() for folder in ("*.cpp", "*.h") for it in (TOP / "gateway" / "src").glob(folder))
    found = re.findall(r"Refusal\((?:\w+ \? )?(\d{3})(?: : (\d{3}))?", code)
    given = {int(status) for some in found for status in some if status} - {499}
    told = {it["status"] for it in document["x-gateway"]}
    return [f"x-gateway: {it}" for it in sorted(given ^ told)]


CASES = {"tables-in-docs": tables_are_current}
