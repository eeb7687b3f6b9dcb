# \
line 10
__LINE__
