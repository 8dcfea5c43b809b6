"""Joins the C that wasm2c made of passkey.wasm with wasm.h and portable.c into one file: one_file.py MODULE.c MODULE.h > passkey.c.
Of the C it keeps the functions and the data, with shorter names; what it leaves out stands in wasm.h."""
import re
import sys
from pathlib import Path

here = Path(__file__).resolve().parent
code, header = (Path(name).read_text() for name in sys.argv[1:])
instance = re.search(r"typedef struct Z_passkey_instance_t \{.*?\} Z_passkey_instance_t;\n", header, re.S).group()
functions = code[code.index("\nstatic ", code.index("func_types[0] =")):code.index("/* export: 'memory' */")]
assert "func_types" not in functions and "CALL_INDIRECT" not in functions, "a call by a pointer"
pages = re.search(r"wasm_rt_allocate_memory\(&instance->w2c_memory, (\d+), \d+\);", functions)
functions = functions.replace(pages.group(), "")
data, size = map(int, re.search(r"LOAD_DATA\(instance->w2c_memory, (\d+)u, data_segment_data_w2c_d0, (\d+)\);", functions).groups())
assert functions.count("LOAD_DATA(") == 1, "data in several places"
heap = int(re.search(r"instance->w2c___heap_base = (\d+)ull;", functions).group(1))
functions = re.sub(r"static void init_(tables|data_instances|elem_instances)\(.*?\n\}\n", "", functions, flags=re.S)
module = (instance + f"\nenum {{ FIRST_PAGES = {pages.group(1)}, ZEROS = {data + size}, HEAP = {heap} }};\n" + functions +
          """
static bool instantiate(Z_passkey_instance_t *instance)
{
  if (!resize(&instance->w2c_memory, FIRST_PAGES))
    return false;
  init_globals(instance);
  init_memories(instance);
  memset(at(&instance->memory, ZEROS, HEAP - ZEROS), 0, HEAP - ZEROS);
  return true;
}
""")
module = "\n".join(line for line in module.split("\n") if "w2c_T0" not in line)
module = re.sub(r"\bw2c_(?:__(heap_base|stack_pointer)|(heap_end))\b", r"\1\2", module)
module = re.sub(r"\bw2c_([ijlpBLdg]\d+|memory|Bfunc)\b", r"\1", module)
module = re.sub(r"\b(w2c_passkey_[a-z_]+)_\d+\b", r"\1", module)  # portable.c calls these without the ABI's number
module = re.sub(r"\bZ_passkey_instance_t\b", "instance_t", module)
module = re.sub(r"^ +", "", module, flags=re.M)
whole = (here / "portable.c").read_text()
for name, text in ('#include "wasm.h"\n', (here / "wasm.h").read_text()), ('#include "module.inc"\n', module):
    assert name in whole
    whole = whole.replace(name, text)
print(whole, end="")
