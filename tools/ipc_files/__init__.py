"""What `tools/ipc-files` is made of: files of planning competitions are made into files of the language of docs/language.md.

It needs nothing but Python 3.9. docs/ipc-files.md tells what it does. `task` has the order of the changes, each of which is a
module that takes a task's trees and gives others, and tells what it did."""
