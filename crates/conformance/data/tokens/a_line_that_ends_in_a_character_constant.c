int a = '
';