"""The whole way from the MIR and a C header to the C file."""
import os

from . import shims, text
from .mir import Unsupported
from .program import Program
from .sources import Sources


def roots(mir, crate, names):
    """Returns the instance of each export."""
    found = {}
    for name in mir.functions:
        if name.split('::')[0] == crate and name.split('::')[-1] in names:
            found.setdefault(name.split('::')[-1], (name, (), ()))
    missing = sorted(set(names) - set(found))
    if missing:
        raise Unsupported('the crate has no function ' + ', '.join(missing))
    return [found[name] for name in names]


def translate(mir, said):
    """Returns the C file. `said` has the crate, the header, the title, the version and the folders, as the command line of tools/c-source."""
    header = shims.Header(said.header)
    program = Program(mir, Sources(said.crates, os.path.join(said.kit, 'rlibs')), text.all_helpers())
    exports = roots(mir, said.crate, header.functions)
    texts = program.translate(exports)
    made = [shims.Shim(program, header, name, key).text() for name, key in zip(header.functions, exports)]
    with open(os.path.join(said.kit, 'KIT-ID'), encoding='utf-8') as stream:
        toolchain = stream.read().strip()
    return text.file_text(program, texts, made, {
        'title': said.title, 'crate': said.crate, 'version': said.version, 'toolchain': toolchain,
        'checksum': mir.checksum({key[0] for key, _ in texts}), 'header': os.path.basename(said.header)})
