#include <stdio.h>
#include <stdlib.h>
#include <string.h>
#include "bukzarn.h"
static unsigned char image[70000], frame[4096], logb[20000], report[17994], work[65536];
int main(int c,char**v){ char path[600]; unsigned long budget, ll, fl; 
 while(scanf("%599s %lu %lu %lu",path,&budget,&ll,&fl)==4){ FILE*f=fopen(path,"rb"); size_t n=fread(image,1,sizeof image,f); fclose(f); for(size_t i=0;i<fl;i++)frame[i]=i&255; memset(work,0x5a,sizeof work);
  unsigned long long r=bukzarn_run(image,n,frame,fl,(unsigned)budget,logb,ll,report,sizeof report,work,sizeof work);
  size_t rb=bukzarn_report_bytes(r), lb=bukzarn_is_run(r)?bukzarn_log_bytes(r):0; printf("%d ",bukzarn_is_run(r)); for(size_t i=0;i<lb;i++)printf("%02x",logb[i]); printf("|"); for(size_t i=0;i<rb;i++)printf("%02x",report[i]); printf("\n"); } }
