int n @
