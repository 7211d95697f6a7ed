"""What is wanted of the files of a corpus, which has the named lines and objects in two places: those of `inputs/want` take the
place of others of the same name."""

# The name of each form, the folder of its listings, and how their names end.
FORMS = [("", "want", ".want"), (" --names", "want-named", ""), (" --json", "want-json", "")]


def where_wanted(corpus, path, form, folder, ending):
    """Where the listing that is expected of a file is, in a form."""
    if path.parent.name == "captures":
        name = f"{path.name}.want{form.replace(' --', '-')}"
        newer = corpus / "inputs/want/captures" / name
        return newer if newer.exists() else path.with_name(name)
    name = f"{path.relative_to(corpus)}{ending}"
    newer = corpus / "inputs/want" / folder / name
    return newer if newer.exists() else corpus / folder / name


def wanted(corpus, path, form, folder, ending):
    """The listing that is expected of a file, with its status."""
    return where_wanted(corpus, path, form, folder, ending).read_text()
