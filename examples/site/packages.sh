# What run and try have in common. `here` is the folder of the example.

top=$(readlink -f "$here/../..")
. "$top/scripts/packages.sh"
. "$top/scripts/python.sh"
