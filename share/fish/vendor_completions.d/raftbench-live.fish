# fish completion for raftbench-live

complete -c raftbench-live -F
complete -c raftbench-live -s h -l help -d 'Show help'
complete -c raftbench-live -l port -x -d 'Listen on this port'
complete -c raftbench-live -l no-browser -d 'Open no browser'
complete -c raftbench-live -l with -x -d 'Also run the script on your own nodes'
complete -c raftbench-live -l in-editor -x -a vscode -d 'Let an editor show the page in a frame'
complete -c raftbench-live -l book -x -a '(__fish_complete_directories)' -d 'Write a page for each script of a folder'
complete -c raftbench-live -l out -x -a '(__fish_complete_directories)' -d 'Where to write the pages'
complete -c raftbench-live -l differing -d 'Write only the scripts that differ'
