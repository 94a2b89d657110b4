#define _GNU_SOURCE
#include <stdint.h>
#include <stdio.h>
#include <stdlib.h>
#include <string.h>
#include <ucontext.h>
uint64_t bukzarn_run(const uint8_t*,size_t,const uint8_t*,size_t,uint32_t,uint8_t*,size_t,uint8_t*,size_t,uint8_t*,size_t);
void bukzarn_run_frames(const uint8_t*,size_t,const uint8_t*,size_t,uint32_t,uint8_t*,size_t,uint8_t*,size_t,uint64_t*,size_t,uint8_t*,size_t);
uint64_t bukzarn_validate(const uint8_t*,size_t,size_t,size_t);
uint64_t bukzarn_need(const uint8_t*,size_t,uint32_t*,size_t);
uint64_t bukzarn_fixed(const uint8_t*,size_t,uint8_t*,size_t);
uint64_t bukzarn_load(uint32_t,size_t,uint8_t*,size_t);
uint64_t bukzarn_strip(const uint8_t*,size_t,uint16_t,uint8_t*,size_t);
#define STACK (512*1024)
static uint64_t stack[STACK/8];
static ucontext_t here, there;
static uint8_t img[20000]; static size_t n;
static uint8_t frame[256*3], logb[16384*3], rep[17994*3], work[65536], out[20000]; static uint64_t ans[3]; static uint32_t numbers[16];
static int which; static uint64_t answer;
static void body(void){
  switch(which){
  case 0: answer=bukzarn_run(img,n,frame,256,100000,logb,16384,rep,17994,work,65536); break;
  case 1: bukzarn_run_frames(img,n,frame,256*3,100000,logb,16384*3,rep,17994*3,ans,3,work,65536); break;
  case 2: answer=bukzarn_validate(img,n,65536,17994); break;
  case 3: answer=bukzarn_need(img,n,numbers,11); break;
  case 4: answer=bukzarn_fixed(img,n,out,20000); break;
  case 5: answer=bukzarn_strip(img,n,1,out,20000); break;
  case 6: answer=bukzarn_load(155840010,9,out,20000); break;
  case 7: break;
  }
}
static size_t measure(int w){
  which=w;
  for(size_t i=0;i<STACK/8;i++) stack[i]=0xA5C3A5C35A3C5A3Cull;
  getcontext(&there); there.uc_stack.ss_sp=stack; there.uc_stack.ss_size=STACK; there.uc_link=&here;
  makecontext(&there,body,0); swapcontext(&here,&there);
  size_t i=0; while(i<STACK/8 && stack[i]==0xA5C3A5C35A3C5A3Cull) i++;
  return STACK-8*i;
}
int main(int c,char**v){
  const char*names[]={"run","run_frames","validate","need","fixed","strip","load"};
  size_t most[7]={0}; const char*at[7]={0}; int verbose=getenv("V")!=0;
  /* resolve symbols first */
  n=0; for(int w=0;w<7;w++) measure(w);
  size_t base=measure(7);
  for(int a=1;a<c;a++){
    FILE*f=fopen(v[a],"rb"); n=fread(img,1,sizeof img,f); fclose(f); if(n>16384) n=16384;
    for(int w=0;w<7;w++){ size_t m=measure(w)-base; if(verbose) printf("%s %s %zu\n",v[a],names[w],m); if(m>most[w]){most[w]=m;at[w]=v[a];} }
  }
  for(int w=0;w<7;w++) printf("%-11s %6zu %s\n",names[w],most[w],at[w]);
}
