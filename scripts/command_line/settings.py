"""The settings of a request to `ecmaprint`, by the words of `ecmagen`."""

FLAGS = {
    "--minify": "minify",
    "--omit-last-semi": "omit_last_semi",
    "--ascii-only": "ascii_only",
    "--assert": "emit_assert_for_import_attributes",
    "--inline-script": "inline_script",
}
VERSIONS = ["es3", "es5", *(f"es{year}" for year in range(2015, 2023)), "esnext"]
LONGEST = 2**32 - 1


def request_of(words):
    """What the words ask for, as members of a request; nothing where one of them is wrong."""
    config, asked, given = {}, {}, iter(words)
    for word in given:
        if word in FLAGS:
            config[FLAGS[word]] = True
        elif word in ("--positions", "--any"):
            asked[word[2:]] = True
        elif word == "--target" and (version := next(given, None)) in VERSIONS:
            config["target"] = version
        elif word == "--max-line" and (length := next(given, "")).isdecimal() and length.isascii() and int(length) <= LONGEST:
            config["max_line"] = int(length)
        else:
            return None
    return {**asked, "config": config}


def why(answer):
    """Why an answer has no text, as `ecmagen` says it."""
    error = answer["error"]
    return f"refused: {error['cause']}" if error["kind"] == "refused" else error["kind"]
