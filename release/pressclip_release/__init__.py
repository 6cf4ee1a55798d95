"""How the files of a release are made of what ./build and bindings/c/build have built."""
