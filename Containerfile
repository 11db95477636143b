FROM debian:12-slim
COPY dist/vrepl-x86_64-linux /usr/local/bin/vrepl
ENV GLIBC_TUNABLES=glibc.malloc.hugetlb=1:glibc.malloc.top_pad=16777216
