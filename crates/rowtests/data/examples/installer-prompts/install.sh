# Stands for an installer, to run script.exp live in this folder: rx script.exp
ask() { printf '%s' "$1"; read -r reply; }
echo 'Tool 2.4'
ask 'Do you accept the licence (yes/no) : '
ask 'Install to [/opt]? '
ask 'Overwrite /srv/tool/tool.conf (y/n)? '
ask 'Overwrite /srv/tool/tool.db (y/n)? '
echo 'Copying 12 files'
echo 'Installation complete'
