#!/bin/sh
# real.sh: prints the paths of the real modules that Debian's packages hold (BSD licence), and installs what is missing of these.
set -eu
"$(dirname "$0")/../need" libyuma-base libyang2 libyang2-tools
dpkg -L libyuma-base libyang2 libyang2-tools | grep '\.yang$' | sort -u
